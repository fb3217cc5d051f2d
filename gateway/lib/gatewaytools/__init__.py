"""Modules of gateway/audit, gateway/demo and gateway/test."""
