"""QEMU: its monitor, guests for trials, and migrations to compare with."""
