; Three tiles are turned by one cell.
(define (problem two-by-two)
  (:domain sliding)
  (:objects one two three - tile nw ne sw se - cell)
  (:init (beside nw ne) (beside ne nw) (beside sw se) (beside se sw)
    (beside nw sw) (beside sw nw) (beside ne se) (beside se ne)
    (at one nw) (at two ne) (at three se) (blank sw))
  (:goal (and (at one sw) (at two nw) (at three ne))))
