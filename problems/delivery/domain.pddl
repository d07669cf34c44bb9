; Constants in the domain, and equality: `return` is for the depot alone, and no van drives to where it is.
(define (domain delivery)
  (:requirements :strips :typing :equality)
  (:types van place)
  (:constants depot - place)
  (:predicates (van-at ?v - van ?p - place) (served ?p - place) (home ?v - van))
  (:action drive
    :parameters (?v - van ?from ?to - place)
    :precondition (and (van-at ?v ?from) (not (= ?from ?to)))
    :effect (and (not (van-at ?v ?from)) (van-at ?v ?to) (served ?to)))
  (:action return
    :parameters (?v - van ?p - place)
    :precondition (and (van-at ?v ?p) (= ?p depot))
    :effect (home ?v)))
