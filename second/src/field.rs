//! Whole numbers modulo a prime p below 2^31, held in u64.

pub fn add(a: u64, b: u64, p: u64) -> u64 {
    (a + b) % p
}

pub fn sub(a: u64, b: u64, p: u64) -> u64 {
    (a + (p - b)) % p
}

pub fn mul(a: u64, b: u64, p: u64) -> u64 {
    a * b % p
}

pub fn power(mut a: u64, mut e: u64, p: u64) -> u64 {
    let mut r = 1 % p;
    a %= p;
    while e > 0 {
        if e & 1 == 1 {
            r = r * a % p;
        }
        a = a * a % p;
        e >>= 1;
    }
    r
}

/// Inverse of a nonzero number by the extended Euclidean algorithm.
pub fn inverse(a: u64, p: u64) -> u64 {
    let (mut r0, mut r1) = (p as i64, a as i64);
    let (mut t0, mut t1) = (0i64, 1i64);
    while r1 != 0 {
        let q = r0 / r1;
        (r0, r1) = (r1, r0 - q * r1);
        (t0, t1) = (t1, t0 - q * t1);
    }
    assert!(r0 == 1, "no inverse");
    let b = t0.rem_euclid(p as i64) as u64;
    assert!(a * b % p == 1);
    b
}

/// Strong pseudoprime test for the bases 2, 3, 5 and 7, which errs for no
/// number below 3,215,031,751; all numbers asked about here that may be
/// accepted are below 2^31.
pub fn is_prime(n: u64) -> bool {
    assert!(n < 3_215_031_751);
    if n < 2 {
        return false;
    }
    for b in [2u64, 3, 5, 7] {
        if n == b {
            return true;
        }
        if n % b == 0 {
            return false;
        }
    }
    let twos = (n - 1).trailing_zeros();
    let odd = (n - 1) >> twos;
    'bases: for b in [2u64, 3, 5, 7] {
        let mut x = power(b, odd, n);
        if x == 1 || x == n - 1 {
            continue;
        }
        for _ in 1..twos {
            x = (x as u128 * x as u128 % n as u128) as u64;
            if x == n - 1 {
                continue 'bases;
            }
        }
        return false;
    }
    true
}

/// A prime that a problem may name: 2 to 2,147,483,647.
pub fn allowed(n: u64) -> bool {
    n <= 2_147_483_647 && is_prime(n)
}
