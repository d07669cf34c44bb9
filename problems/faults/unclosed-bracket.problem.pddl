; prints: powerlift: problem:2:1: unclosed bracket
(define (problem one-door)
  (:domain doors)
  (:objects gate - door hall yard - room)
  (:init (between gate hall yard) (open gate) (in hall))
  (:goal (in yard))
