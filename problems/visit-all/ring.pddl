; Four places in a ring, the first of them joined to itself.
(define (problem ring)
  (:domain visit-all)
  (:objects a b c d - place)
  (:init (joined a b) (joined b c) (joined c d) (joined d a) (joined a a) (robot-at a))
  (:goal (and (visited a) (visited b) (visited c) (visited d))))
