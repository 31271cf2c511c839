compax-leader-0.journal leader 20000
compax-match-0.journal matchmaker 20000
compax-acceptor-0.journal acceptor 20000
compax-replica-0.journal replica 20000
