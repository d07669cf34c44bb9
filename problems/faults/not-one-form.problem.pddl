; prints: powerlift: problem:7:1: not one form
(define (problem one-door)
  (:domain doors)
  (:objects gate - door hall yard - room)
  (:init (between gate hall yard) (open gate) (in hall))
  (:goal (in yard)))
(:metric)
