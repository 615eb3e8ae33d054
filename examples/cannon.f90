! A product of matrices by Cannon's shifts: row I of A begins I-1 columns further, column J of B J-1 rows further; both go round.
! See `hpf map --grid 2x2`: in a step each node sends one column of its square of A (dimension 2) and one row of B (dimension 1).
PROGRAM CANNON
  INTEGER, PARAMETER :: N = 8
  INTEGER :: A(N,N) = 0, B(N,N) = 0, C(N,N) = 0, LEFT(N,N) = 0, UP(N,N) = 0, COLUMN(N) = 0, ROW(N) = 0, I, J, STEP, WRONG
!HPF$ DISTRIBUTE C(BLOCK,BLOCK)
!HPF$ ALIGN (:,:) WITH C(:,:) :: A, B, LEFT, UP
!HPF$ ALIGN COLUMN(I) WITH C(I,N)
!HPF$ ALIGN ROW(J) WITH C(N,J)
  FORALL (I = 1:N, J = 1:N)
    A(I,J) = MOD(I * I + 3 * J, 11) - 4
    B(I,J) = MOD(5 * I * J + J, 13) - 5
  END FORALL
  DO I = 1, N
    LEFT(I,1:N-I+1) = A(I,I:N)
    LEFT(I,N-I+2:N) = A(I,1:I-1)
    UP(1:N-I+1,I) = B(I:N,I)
    UP(N-I+2:N,I) = B(1:I-1,I)
  END DO
  DO STEP = 1, N
    C = C + LEFT * UP
    COLUMN = LEFT(:,1)
    LEFT(:,1:N-1) = LEFT(:,2:N)
    LEFT(:,N) = COLUMN
    ROW = UP(1,:)
    UP(1:N-1,:) = UP(2:N,:)
    UP(N,:) = ROW
  END DO
  WRONG = 0
  DO J = 1, N
    DO I = 1, N
      IF (C(I,J) /= SUM(A(I,:) * B(:,J))) WRONG = WRONG + 1
    END DO
    PRINT *, C(J,:)
  END DO
  PRINT *, 'wrong elements:', WRONG
END PROGRAM CANNON
