
// Ours, after the original's text: the steps of the entry for `DoNotCheckDistance`, and the stencil that the entry keeps to itself.
pub fn drive<const N: usize>(
    output: &mut Bitmap<f32, N>,
    shape: &Shape,
    transformation: &SdfTransformation,
    config: &MsdfGeneratorConfig,
) -> Vec<u8> {
    let mut ec = MsdfErrorCorrection::new(output.width, output.height, transformation, config);
    match config.error_correction.mode {
        ErrorCorrectionMode::Disabled | ErrorCorrectionMode::Indiscriminate => {}
        ErrorCorrectionMode::EdgePriority => {
            ec.protect_corners(shape);
            ec.protect_edges(output);
        }
        ErrorCorrectionMode::EdgeOnly => ec.protect_all(),
    }
    ec.find_errors(output);
    ec.apply(output);
    ec.stencil
}

// The corners' step alone, on an empty stencil: the original does not keep what a corner protected apart from what an edge did.
pub fn drive_corners(width: usize, height: usize, shape: &Shape, transformation: &SdfTransformation, config: &MsdfGeneratorConfig) -> Vec<u8> {
    let mut ec = MsdfErrorCorrection::new(width, height, transformation, config);
    if config.error_correction.mode == ErrorCorrectionMode::EdgePriority {
        ec.protect_corners(shape);
    }
    ec.stencil
}

// The original's own classifier, with each of its range tests counted on the way.
struct CountingClassifier<'a> {
    base: BaseClassifier,
    made: &'a std::cell::Cell<u32>,
}

impl Classifier for CountingClassifier<'_> {
    fn span(&self) -> f64 {
        self.base.span()
    }
    fn protected_flag(&self) -> bool {
        self.base.protected_flag()
    }
    fn range_test(&self, at: f64, bt: f64, xt: f64, am: f32, bm: f32, xm: f32) -> i32 {
        self.made.set(self.made.get() + 1);
        self.base.range_test(at, bt, xt, am, bm, xm)
    }
    fn evaluate(&self, t: f64, m: f32, flags: i32) -> bool {
        self.base.evaluate(t, m, flags)
    }
}

// One texel by the original's detectors, in the order of `find_errors` and with its stops: the range tests that were made, and whether it has an artifact.
fn count_texel<const N: usize>(sdf: &Bitmap<f32, N>, spans: (f64, f64, f64), x: usize, y: usize, protected_flag: bool) -> (u32, bool) {
    let (h_span, v_span, d_span) = spans;
    let made = std::cell::Cell::new(0);
    let classifier = |span: f64| CountingClassifier { base: BaseClassifier { span, protected_flag }, made: &made };
    let c = sdf.pixel(x, y);
    let cm = medf(c);
    let linear = |span: f64, bx: usize, by: usize| has_linear_artifact(&classifier(span), cm, c, sdf.pixel(bx, by));
    let diagonal = |dx: usize, dy: usize| has_diagonal_artifact(&classifier(d_span), cm, c, sdf.pixel(dx, y), sdf.pixel(x, dy), sdf.pixel(dx, dy));
    let (left, below, right, above) = (x > 0, y > 0, x < sdf.width - 1, y < sdf.height - 1);
    let artifact = left && linear(h_span, x - 1, y)
        || below && linear(v_span, x, y - 1)
        || right && linear(h_span, x + 1, y)
        || above && linear(v_span, x, y + 1)
        || left && below && diagonal(x - 1, y - 1)
        || right && below && diagonal(x + 1, y - 1)
        || left && above && diagonal(x - 1, y + 1)
        || right && above && diagonal(x + 1, y + 1);
    (made.get(), artifact)
}

// The range tests that `find_errors` makes for each texel over this bitmap and a stencil with these protected cells, and whether it flags it.
pub fn drive_counting<const N: usize>(
    sdf: &Bitmap<f32, N>,
    stencil: &[u8],
    transformation: &SdfTransformation,
    config: &MsdfGeneratorConfig,
) -> Vec<(u32, bool)> {
    let w = sdf.width;
    let spans = MsdfErrorCorrection::new(w, sdf.height, transformation, config).spans();
    stencil.iter().enumerate().map(|(k, cell)| count_texel(sdf, spans, k % w, k / w, cell & FLAG_PROTECTED != 0)).collect()
}
