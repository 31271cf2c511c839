compax-leader-0.journal leader 640
compax-match-0.journal matchmaker 640
compax-acceptor-0.journal informed 640
compax-replica-0.journal told-longest 640
