"""Checks of the built programs from outside: checks/run NAME runs one."""
