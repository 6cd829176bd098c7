"""The modules of virtual-building(1). Its unit tests need no terminal, socket or clock."""
