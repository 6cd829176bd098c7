"""The modules of enogate-report(1)."""
