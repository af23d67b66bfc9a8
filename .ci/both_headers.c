/* Our header and CBFlib's in one program, in either order: compiled with -DOURS_FIRST and without. Both libraries are
 * called, so that neither header can have hidden the other's declarations. */
#ifdef OURS_FIRST
#include <mooringelm.h>
#include <cbf.h>
#else
#include <cbf.h>
#include <mooringelm.h>
#endif
#include <stdio.h>

int main(void)
{
    cbf_handle handle;
    mel_answer answer = mel_count(NULL, 0);

    if (cbf_make_handle(&handle) != 0 || cbf_free_handle(handle) != 0)
        return 1;
    printf("refused %u at %u: %s; CBF_BYTE_OFFSET is %#x, MEL_BYTE_OFFSET is %d\n", (unsigned)answer.refusal,
           (unsigned)answer.place, mel_refusal_text(answer.refusal), (unsigned)CBF_BYTE_OFFSET, MEL_BYTE_OFFSET);
    return answer.refusal == 1 ? 0 : 1;
}
