/* Test drivers of jobs, of trains and of the printed product, not proved: random arguments. */
#include "job_draw.h"

#include "draw.h"
#include "fault_draw.h"
#include "records.h"
#include "sheet_draw.h"

uint32_t draw_method(void)
{
    static const uint32_t methods[] = {1, 3, 4, 5, 7};
    int which = from_to(0, 4);
    return one_in(20) ? (uint32_t)from_to(0, 9) : methods[which];
}

static size_t draw_factor(uint8_t *sheet, int rows, int columns, bool moderate)
{
    if (one_in(4))
        return draw_sheet(sheet);
    size_t length = draw_valid_sheet(sheet, (uint32_t)rows, (uint32_t)columns, moderate, moderate);
    bool has_cell = (sheet[0] | sheet[1]) != 0;
    if (one_in(12) && has_cell)
        put_fault(sheet, draw_fault_number(sheet[KIND_BYTE]));
    return length;
}

void draw_job(struct job *job)
{
    int most = one_in(50) ? 32 : 5;
    int m = from_to(1, most), k = from_to(1, most), n = from_to(1, most);
    int b_rows = one_in(12) ? from_to(1, most) : k;
    bool moderate = !one_in(3);
    fill_bytes(job->a, GUARDED(BYTES));
    fill_bytes(job->b, GUARDED(BYTES));
    job->method = draw_method();
    job->a_length = draw_factor(job->a + GUARD, m, k, moderate);
    job->b_length = draw_factor(job->b + GUARD, b_rows, n, moderate);
}
