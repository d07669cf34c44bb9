; prints: powerlift: problem:5:51: unknown name
(define (problem one-door)
  (:domain doors)
  (:objects gate - door hall yard - room)
  (:init (between gate hall yard) (open gate) (in cellar))
  (:goal (in yard)))
