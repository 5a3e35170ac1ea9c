"""Measurements, and the workloads that they are made with."""
