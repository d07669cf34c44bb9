; Cars cross by a ferry that takes one at a time.
(define (domain ferry)
  (:requirements :strips :typing)
  (:types car port)
  (:predicates (ferry-at ?p - port) (car-at ?c - car ?p - port) (aboard ?c - car) (empty))
  (:action sail
    :parameters (?from ?to - port)
    :precondition (ferry-at ?from)
    :effect (and (not (ferry-at ?from)) (ferry-at ?to)))
  (:action board
    :parameters (?c - car ?p - port)
    :precondition (and (car-at ?c ?p) (ferry-at ?p) (empty))
    :effect (and (aboard ?c) (not (car-at ?c ?p)) (not (empty))))
  (:action debark
    :parameters (?c - car ?p - port)
    :precondition (and (aboard ?c) (ferry-at ?p))
    :effect (and (car-at ?c ?p) (empty) (not (aboard ?c)))))
