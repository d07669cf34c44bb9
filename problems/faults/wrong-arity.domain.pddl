; prints: powerlift: domain:7:24: wrong arity
(define (domain doors)
  (:types door room)
  (:predicates (between ?d - door ?x ?y - room) (open ?d - door) (in ?x - room))
  (:action pass
    :parameters (?d - door ?x ?y - room)
    :precondition (and (between ?x ?y) (open ?d) (in ?x))
    :effect (and (in ?y) (not (in ?x)))))
