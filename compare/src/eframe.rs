//! Stands in for the drawing library that notes.rs imports, so that the published file compiles as it is. Nothing here is ever run.
pub mod egui {
    pub mod text {
        #[derive(Default)]
        pub struct LayoutJob;
        impl LayoutJob {
            pub fn append(&mut self, _: &str, _: f32, _: super::TextFormat) {}
        }
    }
    #[derive(Clone, Copy, Default)]
    pub struct Color32;
    pub enum FontFamily {
        Name(std::sync::Arc<str>),
    }
    #[derive(Default)]
    pub struct FontId;
    impl FontId {
        pub fn new(_: f32, _: FontFamily) -> Self {
            FontId
        }
        pub fn monospace(_: f32) -> Self {
            FontId
        }
        pub fn proportional(_: f32) -> Self {
            FontId
        }
    }
    #[derive(Default)]
    pub struct TextFormat {
        pub font_id: FontId,
        pub color: Color32,
        pub background: Color32,
        pub italics: bool,
    }
    pub struct RichText;
    impl RichText {
        pub fn new(_: String) -> Self {
            RichText
        }
    }
    pub enum TextStyle {
        Body,
    }
    pub struct Visuals {
        pub code_bg_color: Color32,
    }
    impl Visuals {
        pub fn text_color(&self) -> Color32 {
            Color32
        }
        pub fn strong_text_color(&self) -> Color32 {
            Color32
        }
    }
    pub struct Label;
    impl Label {
        pub fn new(_: text::LayoutJob) -> Self {
            Label
        }
        pub fn wrap(self) -> Self {
            self
        }
    }
    pub struct Ui {
        visuals: Visuals,
    }
    impl Ui {
        pub fn visuals(&self) -> &Visuals {
            &self.visuals
        }
        pub fn text_style_height(&self, _: &TextStyle) -> f32 {
            0.0
        }
        pub fn add_space(&mut self, _: f32) {}
        pub fn add(&mut self, _: Label) {}
        pub fn label(&mut self, _: RichText) {}
        pub fn horizontal_top(&mut self, f: impl FnOnce(&mut Ui)) {
            f(self)
        }
    }
}
