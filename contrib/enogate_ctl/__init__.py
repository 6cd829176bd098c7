"""The modules of enogatectl(1), which gives orders to a gateway and finds their answers."""
