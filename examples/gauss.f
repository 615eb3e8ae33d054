*     N equations modulo a prime by Gauss elimination, so that all is
*     exact; column N+1 is the right side. See `hpf map --fixed
*     --grid 4`: columns are dealt out in turn, column K is sent along
*     dimension 2, and exchanging rows sends nothing.
      PROGRAM GAUSS
      INTEGER, PARAMETER :: N = 8, PRIME = 101
      INTEGER :: A(N,N+1) = 0, GIVEN(N,N+1) = 0, ROW(N+1) = 0,
     1           X(N+1) = 0, I, J, K, P, PIVOT, INVERSE
*HPF$ DISTRIBUTE A(*,CYCLIC)
*HPF$ ALIGN GIVEN(:,:) WITH A(:,:)
*HPF$ ALIGN (J) WITH A(*,J)
*HPF$1      :: ROW, X
      FORALL (I = 1:N, J = 1:N+1)
     1       A(I,J) = MOD(I ** J + 3 * I * J + J, PRIME)
      A(2,:) = A(1,:)
      A(2,3) = A(2,3) + 1
      GIVEN = A

*     Each column is cleared below its pivot.
      DO K = 1, N
        DO P = K, N
          IF (A(P,K) /= 0) EXIT
        END DO
        IF (P > N) THEN
          PRINT *, 'no pivot in column', K
          STOP
        END IF
        IF (P > K) THEN
          PRINT *, 'rows', K, 'and', P, 'change places'
          ROW = A(K,:)
          A(K,:) = A(P,:)
          A(P,:) = ROW
        END IF
        PIVOT = A(K,K)
        DO INVERSE = 1, PRIME - 1
          IF (MOD(PIVOT * INVERSE, PRIME) == 1) EXIT
        END DO
        A(K,K:) = MOD(A(K,K:) * INVERSE, PRIME)
        FORALL (I = K+1:N, J = K:N+1)
*         A row without what it has of the pivot's row
     1         A(I,J) = MODULO(A(I,J) - A(I,K) * A(K,J), PRIME)
      END DO

*     The solution comes from the last unknown up.
      DO K = N, 1, -1
        X(K) = MODULO(A(K,N+1)
     1                - SUM(A(K,K+1:N) * X(K+1:N)), PRIME)
      END DO
      PRINT *, 'solution', X(1:N)
      DO I = 1, N
        ROW(I) = MODULO(SUM(GIVEN(I,1:N) * X(1:N))
     1                  - GIVEN(I,N+1), PRIME)
      END DO
      PRINT *, 'equations that it breaks:', COUNT(ROW(1:N) /= 0)
      END PROGRAM GAUSS
