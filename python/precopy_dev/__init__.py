"""What those run who change precopy."""
