/* Benchmarks, not proved: the classical method by Boost.Interval<float>, as two peers:
   with its default policies, which set and restore the rounding mode in each
   operation, and with the mode set once for each product. */
#include <cmath>

#include <boost/numeric/interval.hpp>

#include "bits.h"
#include "peer.h"

using boost::numeric::interval;

typedef interval<float> guarded;
typedef boost::numeric::interval_lib::unprotect<guarded>::type hoisted;

static size_t m, k, n;

template <class Interval> struct cells {
    static Interval a[CELLS], b[CELLS], c[CELLS];

    static void load_matrix(size_t count, const uint32_t *lower, const uint32_t *upper, Interval *x)
    {
        for (size_t i = 0; i < count; i++)
            x[i].assign(value_of(lower[i]), value_of(upper[i]));
    }

    static void load(const struct matrices *x)
    {
        m = x->m;
        k = x->k;
        n = x->n;
        load_matrix(m * k, x->al, x->au, a);
        load_matrix(k * n, x->bl, x->bu, b);
    }

    static bool multiply()
    {
        bool finite = true;
        for (size_t i = 0; i < m; i++)
            for (size_t j = 0; j < n; j++) {
                Interval sum(0.0f);
                for (size_t l = 0; l < k; l++)
                    sum += a[i * k + l] * b[l * n + j];
                c[i * n + j] = sum;
                finite &= std::isfinite(sum.lower()) && std::isfinite(sum.upper());
            }
        return finite;
    }

    static void result(uint32_t *lower, uint32_t *upper)
    {
        for (size_t i = 0; i < m * n; i++) {
            lower[i] = result_pattern(c[i].lower());
            upper[i] = result_pattern(c[i].upper());
        }
    }
};

template <class Interval> Interval cells<Interval>::a[CELLS];
template <class Interval> Interval cells<Interval>::b[CELLS];
template <class Interval> Interval cells<Interval>::c[CELLS];

static bool run_guarded(int method)
{
    return method == 1 && cells<guarded>::multiply();
}

static bool run_hoisted(int method)
{
    guarded::traits_type::rounding mode;
    return method == 1 && cells<hoisted>::multiply();
}

const struct peer peer_boost = {"Boost.Interval float, default policies", "1",
    cells<guarded>::load, run_guarded, cells<guarded>::result};
const struct peer peer_boost_hoisted = {"Boost.Interval float, mode set once", "1",
    cells<hoisted>::load, run_hoisted, cells<hoisted>::result};
