; prints: powerlift: domain:7:19: unsupported
(define (domain doors)
  (:types door room)
  (:predicates (between ?d - door ?x ?y - room) (open ?d - door) (in ?x - room))
  (:action pass
    :parameters (?d - door ?x ?y - room)
    :precondition (or (in ?x) (in ?y))
    :effect (and (in ?y) (not (in ?x)))))
