; The files that stand beside each faulty one: this domain, `problem.pddl` and `plan.txt`.
(define (domain doors)
  (:types door room)
  (:predicates (between ?d - door ?x ?y - room) (open ?d - door) (in ?x - room))
  (:action pass
    :parameters (?d - door ?x ?y - room)
    :precondition (and (between ?d ?x ?y) (open ?d) (in ?x))
    :effect (and (in ?y) (not (in ?x)))))
