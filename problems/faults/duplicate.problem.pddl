; prints: powerlift: problem:7:3: duplicate
(define (problem one-door)
  (:domain doors)
  (:objects gate - door hall yard - room)
  (:init (between gate hall yard) (open gate) (in hall))
  (:goal (in yard))
  (:goal (in hall)))
