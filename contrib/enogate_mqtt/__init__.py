"""The modules of enogate-mqtt, which connects an enogate gateway to an MQTT broker."""
