; The smallest: from a place to a linked one.
(define (domain hop)
 (:predicates (at ?x) (link ?x ?y))
 (:action hop :parameters (?x ?y)
  :precondition (and (at ?x) (link ?x ?y))
  :effect (and (not (at ?x)) (at ?y))))
