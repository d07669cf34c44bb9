; Three places in a row.
(define (problem h) (:domain hop) (:objects a b c)
 (:init (at a) (link a b) (link b c)) (:goal (at c)))
