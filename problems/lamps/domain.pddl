; Negated preconditions, over predicates that steps change too, and a negated goal.
(define (domain lamps)
  (:requirements :strips :negative-preconditions)
  (:predicates (lit ?l) (wired ?l ?m))
  (:action light
    :parameters (?l)
    :precondition (not (lit ?l))
    :effect (lit ?l))
  (:action pass
    :parameters (?l ?m)
    :precondition (and (wired ?l ?m) (lit ?l) (not (lit ?m)))
    :effect (and (not (lit ?l)) (lit ?m))))
