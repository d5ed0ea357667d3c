"""`python3 -m bossd_console`."""

from .main import main

if __name__ == "__main__":
    main()
