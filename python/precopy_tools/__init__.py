"""The commands that users run beside the programs: precopy-record, precopy-predict and others."""
