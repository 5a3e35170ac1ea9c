"""The files that tools read and write: traces, and what stands beside those of samples."""
