resends 600
