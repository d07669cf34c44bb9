; The light goes along a chain, and the first lamp is out at the end.
(define (problem chain)
  (:domain lamps)
  (:objects a b c)
  (:init (wired a b) (wired b c))
  (:goal (and (lit c) (not (lit a)))))
