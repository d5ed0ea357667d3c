"""`python3 -m bossd_mqtt`."""

from .main import main

if __name__ == "__main__":
    main()
