; Packages go by truck within a city and by airplane between airports: a hierarchy of types, and `either`.
(define (domain logistics)
  (:requirements :strips :typing)
  (:types truck airplane package place city - object
    airport - place)
  (:predicates (at ?thing - (either package truck airplane) ?where - place)
    (in ?p - package ?v - (either truck airplane))
    (in-city ?where - place ?c - city))
  (:action load
    :parameters (?p - package ?v - (either truck airplane) ?where - place)
    :precondition (and (at ?p ?where) (at ?v ?where))
    :effect (and (in ?p ?v) (not (at ?p ?where))))
  (:action unload
    :parameters (?p - package ?v - (either truck airplane) ?where - place)
    :precondition (and (in ?p ?v) (at ?v ?where))
    :effect (and (at ?p ?where) (not (in ?p ?v))))
  (:action drive
    :parameters (?t - truck ?from ?to - place ?c - city)
    :precondition (and (at ?t ?from) (in-city ?from ?c) (in-city ?to ?c))
    :effect (and (at ?t ?to) (not (at ?t ?from))))
  (:action fly
    :parameters (?a - airplane ?from ?to - airport)
    :precondition (at ?a ?from)
    :effect (and (at ?a ?to) (not (at ?a ?from)))))
