"""The Modbus TCP server for the readings of a gateway that its bridge publishes."""
