"""What stands for modules of Python's `http`: `cookiejar`."""
