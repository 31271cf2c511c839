batches 65535
