"""Several gateways at one MQTT broker as one."""
