; Balls are carried between rooms by a robot with grippers: untyped STRIPS, with static predicates in place of types.
(define (domain gripper)
  (:requirements :strips)
  (:predicates (room ?r) (ball ?b) (gripper ?g)
    (robot-in ?r) (ball-in ?b ?r) (free ?g) (holds ?g ?b))
  (:action move
    :parameters (?from ?to)
    :precondition (and (room ?from) (room ?to) (robot-in ?from))
    :effect (and (robot-in ?to) (not (robot-in ?from))))
  (:action pick
    :parameters (?b ?r ?g)
    :precondition (and (ball ?b) (room ?r) (gripper ?g) (ball-in ?b ?r) (robot-in ?r) (free ?g))
    :effect (and (holds ?g ?b) (not (ball-in ?b ?r)) (not (free ?g))))
  (:action drop
    :parameters (?b ?r ?g)
    :precondition (and (ball ?b) (room ?r) (gripper ?g) (holds ?g ?b) (robot-in ?r))
    :effect (and (ball-in ?b ?r) (free ?g) (not (holds ?g ?b)))))
