! A table of measurements: how many, their sum, the sum of their
! squares, the greatest and the least, and which bits all of them have.
! REDUCTION joins what the iterations give, in whatever order.
      PROGRAM STATISTICS
      INTEGER, PARAMETER :: N = 6, M = 8
      INTEGER :: T(N,M), I, J, V, LOW, HIGH,
     +           TOTAL = 0, SQUARES = 0, BITS = -1, LARGE = 0
!HPF$ DISTRIBUTE T(CYCLIC,*)
      FORALL (I = 1:N, J = 1:M)
     +       T(I,J) = 8 * MOD(5 * I * J + 3 * J, 17) + 3
      LOW = T(1,1)
      HIGH = T(1,1)
!HPF$ INDEPENDENT, NEW(V),
!HPF$+            REDUCTION(TOTAL, SQUARES, LARGE)
      DO J = 1, M
!HPF$ INDEPENDENT, REDUCTION(LOW, HIGH, BITS)
        DO I = 1, N
          V = T(I,J)
          TOTAL = TOTAL + V
          SQUARES = V * V + SQUARES
          LOW = MIN(LOW, V)
          HIGH = MAX(V, HIGH)
          BITS = IAND(BITS, V)
          IF (V > 100) LARGE = LARGE + 1
        END DO
      END DO
      PRINT *, 'sum', TOTAL, 'from', LOW, 'to', HIGH,
     +         'above 100:', LARGE
      PRINT *, 'variance in thousandths',
     +         1000 * (N * M * SQUARES - TOTAL * TOTAL) / (N * M) ** 2
      PRINT *, 'in all of them', BITS, 'the same by array functions:',
     +         SUM(T), MINVAL(T), MAXVAL(T), COUNT(T > 100)
      END PROGRAM STATISTICS
