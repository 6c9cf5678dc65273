"""Figures for Prometheus: what the gateway's log says of requests, and how offices, files and backups are."""
