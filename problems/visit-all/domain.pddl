; A robot is to have been everywhere: an atom that is never deleted, and a step that adds an atom that it deletes.
(define (domain visit-all)
  (:requirements :strips :typing)
  (:types place)
  (:predicates (joined ?x ?y - place) (robot-at ?x - place) (visited ?x - place))
  (:action move
    :parameters (?from ?to - place)
    :precondition (and (robot-at ?from) (joined ?from ?to))
    :effect (and (not (robot-at ?from)) (robot-at ?to) (visited ?to))))
