; A round over two shops and home again.
(define (problem round)
  (:domain delivery)
  (:objects white - van baker - place butcher - place)
  (:init (van-at white depot))
  (:goal (and (served baker) (served butcher) (home white))))
