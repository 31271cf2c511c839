snapshots 8000
