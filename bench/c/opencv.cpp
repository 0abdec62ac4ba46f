// OpenCV's distanceTransform: to the nearest zero byte, as 32-bit floats. The frame's edge is no background to it, so
// its numbers differ from levels near the edge; the work is the same.
#include <cstddef>
#include <cstdint>

#ifdef NOT_INSTALLED

extern "C" int opencv_distance(const uint8_t *, size_t, size_t, float *, int) { return 0; }

#else

#include <opencv2/core.hpp>
#include <opencv2/imgproc.hpp>

// `chessboard` chooses the distance C (the box) instead of L1 (the cross). Answers 1.
extern "C" int opencv_distance(const uint8_t *pixels, size_t width, size_t height, float *out, int chessboard)
{
    cv::setNumThreads(1);
    const cv::Mat from((int)height, (int)width, CV_8UC1, const_cast<uint8_t *>(pixels));
    cv::Mat to((int)height, (int)width, CV_32FC1, out);
    cv::distanceTransform(from, to, chessboard ? cv::DIST_C : cv::DIST_L1, 3, CV_32F);
    return 1;
}

#endif
