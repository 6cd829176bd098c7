"""The modules of enogate-metrics(1), which writes the state of the gateways as metrics for Prometheus."""
