"""`python3 -m bossd_schedule`."""

from .main import main

if __name__ == "__main__":
    main()
