! Values of a polynomial by Horner's rule. Each iteration has an X and a P of its own,
! which NEW says; without it two iterations would assign the one P.
PROGRAM HORNER
INTEGER, PARAMETER :: N = 12, DEGREE = 4
INTEGER :: C(0:DEGREE), Y(-N/2:N/2), ROOTS(-N/2:N/2) = 0, I, J, X, P
!HPF$ DISTRIBUTE Y(BLOCK)
!HPF$ ALIGN ROOTS(I) WITH Y(I)
C(4) = 1; C(3) = -2; C(2) = -13; C(1) = 14; C(0) = 24
!HPF$ INDEPENDENT, NEW(X, P)
DO I = -N/2, N/2
  X = I
  P = 0
  DO J = DEGREE, 0, -1
    P = P * X + C(J)
  END DO
  Y(I) = P
  IF (P == 0) ROOTS(I) = 1
END DO
PRINT *, Y
PRINT *, 'roots', SUM(ROOTS), 'the last value', P, 'at', X
DO I = -N/2, N/2
  IF (ROOTS(I) == 1) PRINT *, I
END DO
END PROGRAM HORNER
