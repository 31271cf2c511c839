compax-leader-0.journal leader 1
compax-match-0.journal matchmaker 1
compax-acceptor-0.journal told-window 32
