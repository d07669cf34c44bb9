; prints: powerlift: domain:7:51: bad byte
(define (domain doors)
  (:types door room)
  (:predicates (between ?d - door ?x ?y - room) (open ?d - door) (in ?x - room))
  (:action pass
    :parameters (?d - door ?x ?y - room)
    :precondition (and (between ?d ?x ?y) (open ?dé) (in ?x))
    :effect (and (in ?y) (not (in ?x)))))
