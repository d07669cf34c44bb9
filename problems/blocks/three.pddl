; Sussman's anomaly: neither of the two goals can be met first and kept.
(define (problem three)
  (:domain blocks)
  (:objects a b c)
  (:init (on c a) (on-table a) (on-table b) (clear c) (clear b) (hand-empty))
  (:goal (and (on a b) (on b c))))
