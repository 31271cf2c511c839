promises 560
