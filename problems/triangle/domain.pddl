; Three people meet who know each other all around: the join of the condition's atoms is cyclic.
(define (domain triangle)
  (:requirements :strips)
  (:predicates (knows ?x ?y) (met ?x ?y ?z))
  (:action meet
    :parameters (?x ?y ?z)
    :precondition (and (knows ?x ?y) (knows ?y ?z) (knows ?z ?x))
    :effect (met ?x ?y ?z)))
